#!/usr/bin/env bash
# Runs the blocks for a shell of docs/GUIDE.md, tries the words of each tool's texts, and compares what is printed. The files are made by the system's own tools:
# a shadow file by chpasswd (in a folder of its own, which wants root), else by mkpasswd; htpasswd files by htpasswd.
#
#     examples/recipes.sh      (the programs are those on PATH, else crates/*/out/*)
set -u
top=$(cd "$(dirname "$0")/.." && pwd)
PATH=$PATH:$top/crates/pwcheck/out:$top/crates/pwtool/out:$top/crates/pwfile/out:$top/crates/pwstore/out:$top/crates/pwlegacy/out:$top/crates/pwkdf/out:/usr/sbin:/sbin
folder=$(mktemp -d)
trap 'rm -rf "$folder"' EXIT
cd "$folder" || exit 2
bad=0

same() { # NAME WANTED GOT
  if [ "$2" = "$3" ]; then echo "$1: as written"; else echo "$1: DIFFERS: $3"; bad=1; fi
}
has() { command -v "$1" >/dev/null 2>&1; }
skipped() { echo "$1: skipped, as $2 is missing"; }

for program in pwcheck pwfile pwlegacy; do
  has "$program" || { echo "recipes.sh: $program isn't built: skipped"; exit 77; }
done

# ---- a shadow file with users as real systems have them
users='root ann web_adm Joe bob old'
by_chpasswd() {
  [ "$(id -u)" = 0 ] && has chpasswd || return 1
  mkdir -p root/etc
  for user in $users; do
    echo "$user:x:1000:1000::/:/bin/sh" >> root/etc/passwd
    echo "$user:*:20000:0:99999:7:::" >> root/etc/shadow
  done
  printf 'ann:Hello world!\n' | chpasswd -R "$folder/root" -c SHA256 || return 1
  printf 'web_adm:secret\nbob:with:colons:\n' | chpasswd -R "$folder/root" -c SHA512 || return 1
  printf 'Joe:pass word\n' | chpasswd -R "$folder/root" -c YESCRYPT || return 1
  printf 'old:legacy\n' | chpasswd -R "$folder/root" -c MD5 || return 1
  cp root/etc/shadow shadow
}
by_mkpasswd() {
  has mkpasswd || return 1
  {
    echo 'root:*:20000:0:99999:7:::'
    for row in 'ann:sha256crypt:Hello world!' 'web_adm:sha512crypt:secret' 'Joe:yescrypt:pass word' \
      'bob:sha512crypt:with:colons:' 'old:md5crypt:legacy'; do
      user=${row%%:*}; rest=${row#*:}
      echo "$user:$(printf '%s' "${rest#*:}" | mkpasswd -s -m "${rest%%:*}"):20000:0:99999:7:::"
    done
  } > shadow
}
if by_chpasswd; then echo 'shadow file: by chpasswd'
elif by_mkpasswd; then echo 'shadow file: by mkpasswd'
else echo 'recipes.sh: neither chpasswd (as root) nor mkpasswd is here: skipped'; exit 77; fi
printf 'root:x\nann:Hello world!\nweb_adm:wrong\nJoe:pass word\nbob:with:colons:\nold:legacy\n' > passwords

# ---- the table of words: one text of each tool
if has mkpasswd && has htpasswd; then
  {
    for method in sha256crypt sha512crypt md5crypt bcrypt bcrypt-a yescrypt gost-yescrypt scrypt nt sunmd5 descrypt; do
      printf 'pw\t%s\n' "$(printf 'pw' | mkpasswd -s -m "$method")"
    done
    for option in '' -B -s -5; do
      printf 'pw\t%s\n' "$(printf 'pw' | htpasswd -ni $option u | sed -n 's/^u://p')"
    done
    printf 'pw\t%s\n' '$pbkdf2-sha256$29000$N2YMIWQsBWBMae09x1jrPQ$1t8iyB2A.WF/Z5JZv.lfCIhXXN33N23OSgQYThBYRfk' '!' ''
  } > each
  same 'words of each tool' \
    'match match phc-salt-short phc-salt-short phc-salt-short phc-salt-short phc-salt-short phc-b64 mcf-field mcf-identifier mcf-delimiter phc-salt-short phc-salt-short mcf-delimiter match phc-salt-short mcf-delimiter mcf-delimiter' \
    "$(pwcheck check < each | paste -sd ' ')"
else
  skipped 'words of each tool' 'mkpasswd or htpasswd'
fi

# ---- brought to the new form: a sign is put before the rounds of one user's text
ann=$(sed -n 's/^ann:\([^:]*\):.*/\1/p' shadow)
sed 's/^\(ann:\$5\$\)/\1rounds=+05000$/' shadow > earlier
cut -d: -f2 earlier | pwcheck normalize > new-texts
awk -F: -v OFS=: 'NR == FNR { text[FNR] = $0; next } { $2 = text[FNR]; print }' new-texts earlier > shadow.new
same 'normalized' "$(sed 's/^\(ann:\$5\$\)/\1rounds=5000$/' shadow)" "$(cat shadow.new)"
same 'verdicts before and after' 'sha-format match' "$(for file in earlier shadow.new; do
    printf 'Hello world!\t%s\n' "$(sed -n 's/^ann:\([^:]*\):.*/\1/p' "$file")"; done | pwcheck check | paste -sd ' ')"

# ---- a password table for a service
if has pwstore; then
  pwstore table import shadow > replies || cat replies
  same 'a table' "$(printf 'ok\n%.0s' 1 2 3 4 5 6)" "$(cat replies)"
  same 'lines that were refused' '' "$(paste -d ' ' replies shadow | grep -v '^ok ')"
  same 'after a restart' "$(printf 'match\nmismatch\nlocked\nno-user\n')" \
    "$(printf 'check\tJoe\t%s\ncheck\tJoe\tother\ncheck\troot\tx\ncheck\tnobody\tx\n' 'pass word' | pwstore table)"
  same 'an old text upgraded' upgraded \
    "$(printf 'upgrade\told\t%s\t%s\n' "$(head -c 16 /dev/urandom | base64 | tr -d '=')" 'legacy' | pwstore table)"
  same 'and checked' match "$(printf 'check\told\tlegacy\n' | pwstore table)"
  pwstore table compact
  same 'made anew' "$(cut -d: -f1 shadow)" "$(grep ^set table | cut -f2)"
  same 'and checked again' match "$(printf 'check\told\tlegacy\n' | pwstore table)"
  # the block of docs/GUIDE.md as it is there
  sed -n '/^    cat > accounts.py/,/^    PYTHON$/p' "$top/docs/GUIDE.md" | sed 's/^    //' > block.sh
  bash block.sh
  same 'a login service over a table' 'True False ok 1' "$(python3 -c '
from accounts import Accounts
accounts = Accounts("table")
print(accounts.check("Joe", "pass word"), accounts.check("Joe", "other"), accounts.set("ann", "*"), accounts.close())')"
  same 'where another process has the table' 'ok 75 refused' "$(python3 2>/dev/null -c '
from accounts import Accounts, Stopped
first, second = Accounts("table"), Accounts("table")
print(first.set("ann", "*"), end=" ")
try:
    print(second.ask("list"))
except Stopped as stopped:
    print(stopped, end=" ")
print(first.ask("set", "ann", "a\nset\tbob\tx"))')"
  same 'where the process is killed' 'ok -9 ok' "$(python3 2>/dev/null -c '
from accounts import Accounts, Stopped
accounts = Accounts("table")
print(accounts.set("ann", "*"), end=" ")
accounts.child.kill()
accounts.child.wait()
try:
    print(accounts.set("ann", "!"))
except Stopped as stopped:
    print(stopped, end=" ")
print(Accounts("table").set("ann", "*"))')"
  printf 'set\tnew\t*\n' | pwstore table > replies
  pwstore table export > texts.back
  same 'exported' "$(printf 'list\n' | pwstore table | sed 's/^set\t\([^\t]*\)\t/\1:/')" "$(cat texts.back)"
  same 'a user taken away' "$(printf 'ok\nno-user\nok\n')" "$(printf 'remove\tnew\nremove\tnew\nset\tnew\t*\n' | pwstore table)"
  awk -F: -v OFS=: 'NR == FNR { text[$1] = $2; next } $1 in text { $2 = text[$1] } { print }' texts.back shadow > shadow.back
  cut -d: -f1 shadow | LC_ALL=C sort > users.old
  same 'back to a shadow file' new "$(cut -d: -f1 texts.back | LC_ALL=C sort | LC_ALL=C comm -13 users.old -)"
  same 'its fields' "$(cut -d: -f1,3- shadow)" "$(cut -d: -f1,3- shadow.back)"
  same 'its texts' "$(printf 'list\n' | pwstore table | grep -v '^set.new' | cut -f3)" "$(cut -d: -f2 shadow.back)"
else
  skipped 'a table' pwstore
fi

# ---- htpasswd
if has htpasswd; then
  same 'htpasswd' match "$(printf '%s\t%s\n' 'secret' "$(htpasswd -nb ann secret | sed -n 's/^ann://p')" | pwtool check --quiet)"
else
  skipped htpasswd htpasswd
fi

# ---- the text of a new password
if has pwtool; then
  printf '%s\n' 'correct horse' | pwtool make bcrypt --cost 10 > text
  same 'new password' match "$(printf '%s\t%s\n' 'correct horse' "$(cat text)" | pwtool check --quiet)"
else
  skipped 'new password' pwtool
fi

# ---- other tools' texts
same 'another tool' kdf \
  "$(printf 'secret\t$argon2id$v=19$m=65536,t=3,p=4$c29tZXNhbHRzb21lc2FsdA$AcmqasQgW/wI6wAHAMk4aQ\n' | pwcheck check)"
python=
for each in python3 /usr/bin/python3; do
  [ -z "$python" ] && "$each" -c 'from passlib.hash import scrypt' 2>/dev/null && python=$each
done
if [ -n "$python" ]; then
  text=$("$python" -c 'from passlib.hash import scrypt; print(scrypt.using(rounds=10).hash("secret"))')
  same "passlib's scrypt" match "$(printf 'secret\t%s\n' "$text" | pwcheck check)"
else
  skipped "passlib's scrypt" passlib
fi

# ---- statuses
printf 'Hello world!\t%s\nwrong\t%s\n' "$ann" "$ann" > lines
same 'status' 'some do not' "$(set -e
  status=0
  pwcheck check < lines > words || status=$?
  case $status in
    0) echo 'all match' ;;
    1) echo 'some do not' ;;
    *) echo "no whole answer: $status"; exit "$status" ;;
  esac)"
if has parallel; then
  same 'parts by parallel' "$(cat words)" "$("$top/scale/parallel.sh" lines 2>/dev/null)"
else
  skipped 'parts by parallel' 'GNU parallel'
fi
exit $bad
