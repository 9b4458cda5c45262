(printf 'a = '; head -c 65535 /dev/zero | tr '\0' x; printf '\n'; for i in $(seq 300); do echo 'b = $a'; done) > openssl.cnf
