# A name of so many `<`, which are escapes of six bytes in the report, the table and the stacks.
printf '[{"ph":"X","name":"'
head -c 15000000 /dev/zero | tr '\0' '<'
printf '","ts":0,"dur":1}]'
