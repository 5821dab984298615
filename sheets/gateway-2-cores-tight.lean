actor 0: net change 8192, 12532 bytes live while it runs, 12276 after
actor 1: net change 0, 24564 bytes live while it runs, 12276 after
actor 2: net change -1528, 13820 bytes live while it runs, 10748 after
actor 3: net change -1528, 12292 bytes live while it runs, 9220 after
actor 4: net change -1528, 10764 bytes live while it runs, 7692 after
actor 5: net change -1528, 9236 bytes live while it runs, 6164 after
actor 6: net change -256, 6588 bytes live while it runs, 5908 after
actor 7: net change -256, 6332 bytes live while it runs, 5652 after
actor 8: net change -256, 6076 bytes live while it runs, 5396 after
actor 9: net change -256, 5820 bytes live while it runs, 5140 after
actor 10: net change -96, 6612 bytes live while it runs, 5044 after
actor 11: net change -480, 6724 bytes live while it runs, 4564 after
actor 12: net change -240, 4804 bytes live while it runs, 4324 after
actor 13: net change 90, 4782 bytes live while it runs, 4414 after
actor 14: net change 3770, 10562 bytes live while it runs, 8184 after
actor 15: net change -4100, 8184 bytes live while it runs, 4084 after
peak 24564
