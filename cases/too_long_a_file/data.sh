head -c 4194305 /dev/zero > zeros
