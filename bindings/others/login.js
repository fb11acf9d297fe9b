const pwcheck = require(process.argv[2] ?? './pwcheck.node');

const stored = pwcheck.make(Buffer.from('correct horse'));
console.log(pwcheck.login(Buffer.from('correct horse'), stored) ? 'match' : 'no match');
