module metad

go 1.19
