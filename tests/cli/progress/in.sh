yes a | head -n 100001
