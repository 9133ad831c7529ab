p aux sp ss 3
s 4
s 1
s 4
