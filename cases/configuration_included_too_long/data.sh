# a file that is read twice, the second time with too few bytes left
printf '.include half.cnf\n.include half.cnf\n' > openssl.cnf
(printf '#'; head -c 524287 /dev/zero | tr '\0' x) > half.cnf
