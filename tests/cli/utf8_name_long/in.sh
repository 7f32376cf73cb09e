# 1,000 letters of two bytes are taken, and 1,001 are not; bytes that are no letter are told before.
echo "letter U+00FC 3 1 1"
u() { for ((i = 0; i < $1; i++)); do printf '\303\274'; done; }
u 1000; echo
u 1001; echo
u 1001; printf '\303\n'
printf 'find '; u 1000; echo
printf 'find '; u 1001; echo
printf 'key '; u 1001; printf '\200\n'
