printf 'a\nb\n'
yes '' | head -n 99996
echo c
