actor 0: net change 0, 4 bytes live while it runs, 0 after
actor 1: net change 0, 6 bytes live while it runs, 0 after
peak 6
