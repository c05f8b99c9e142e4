script insert (() = "x")
