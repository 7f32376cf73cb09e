yes a | head -n 99999
printf '\nb\n'
