module pipitscreen.example/slh

go 1.19
