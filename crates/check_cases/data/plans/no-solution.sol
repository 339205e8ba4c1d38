Route #1: 1
hello
