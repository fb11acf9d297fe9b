# Writes the password hashes of a Keycloak realm's export as lines `user:text`, which pwtool reads without --from.
#
#     jq -r -f keycloak.jq realm-export.json >texts
#
# The form is that of Keycloak's JSON (PasswordCredentialModel): `secretData` has the salt and the key in Base64, and `credentialData` the
# algorithm and its numbers. PBKDF2 of SHA-1, SHA-256 and SHA-512 and Argon2 have a verdict.

def unpadded: gsub("="; "");

def argon2($numbers; $turns):
  "$argon2" + $numbers.type[0]
  + (if $numbers.version[0] == "1.0" then "$v=16" else "$v=19" end)
  + "$m=" + $numbers.memory[0] + ",t=" + ($turns | tostring) + ",p=" + $numbers.parallelism[0];

def front($data):
  if $data.algorithm == "argon2" then argon2($data.additionalParameters; $data.hashIterations)
  elif $data.algorithm == "pbkdf2" then "$pbkdf2-sha1$i=" + ($data.hashIterations | tostring)
  else "$" + $data.algorithm + "$i=" + ($data.hashIterations | tostring)
  end;

.users[]
| .username as $user
| .credentials[]?
| select(.type == "password")
| (.secretData | fromjson) as $secret
| $user + ":" + front(.credentialData | fromjson) + "$" + ($secret.salt | unpadded) + "$" + ($secret.value | unpadded)
