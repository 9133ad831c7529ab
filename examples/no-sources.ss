p aux sp ss 0
