# The worker that comes first decides how many elements of each file are taken; together they fill the limit.
awk '{ sum += $NF; $NF = "N"; print } END { print sum " together" }'
