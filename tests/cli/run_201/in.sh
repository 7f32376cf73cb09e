for k in $(seq 1 150); do printf 'pair a U+%04X 1 1 1\n' "$((256 + k))"; done
for k in $(seq 1 50); do printf 'run a b U+%04X 1 1 1\n' "$((256 + k))"; done
echo 'run a b c d 1 1 1'
echo 'pair a b 1 1 1'
echo 'pair a U+0101 1 1 1'
echo 'run a b U+10000 1 1 1'
printf 'key ab\xc4\x81\n'
