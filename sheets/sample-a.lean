actor 0: net change 15, 15 bytes live while it runs, 15 after
actor 1: net change -4, 21 bytes live while it runs, 11 after
actor 2: net change -3, 19 bytes live while it runs, 8 after
actor 3: net change -8, 12 bytes live while it runs, 0 after
peak 21
