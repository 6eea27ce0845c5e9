# The soak: the same seed gives the same run.
expect_part 0 ' 0 breaches' "$mp" soak --images 40 --seconds 100 --seed 7
cp out first
expect_part 0 ' 0 breaches' "$mp" soak --images 40 --seconds 100 --seed 7
same out first
expect_part 0 '0 images, 0 calls' "$mp" soak --seconds 0
expect_part 0 ' 0 breaches' "$mp" soak --seconds 2
grep -q '^1 s: ' err || wrong "the soak tells no progress"
expect 2 '' 'there is a word too many: "7"' "$mp" soak 7
