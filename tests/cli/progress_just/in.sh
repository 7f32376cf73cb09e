yes a | head -n 100000
