p aux sp ss 2
s 2
s 3
