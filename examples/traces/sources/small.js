const { readFile } = require("node:fs");
let left = 3;
for (const name of ["/etc/hostname", "/etc/hosts", "/etc/passwd"]) {
  setTimeout(() => readFile(name, () => { left -= 1; }), left * 2);
}
