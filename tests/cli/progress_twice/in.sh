yes a | head -n 200000
