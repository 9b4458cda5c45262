yes '#' | head -n 65537
