count=0
for it in a rose is a rose; do
    count=$((count + 1))
done
echo $count $unknown
