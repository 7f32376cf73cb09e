# 2,000 letters that weigh something are taken, and an entry 0 0 0 is none of them; the next is one too many.
for ((i = 0; i < 2000; i++)); do printf 'letter U+%04X %d 1 1\n' $((i + 0x4E00)) $((i % 3 + 1)); done
echo 'letter x 0 0 0'
echo 'letter U+110000 0 0 0'
echo 'letter x 1 1 1'
echo 'letter U+D800 1 1 1'
echo 'letter U+4E00 1 1 1'
printf 'key x\344\270\200\345\225\217\n'
