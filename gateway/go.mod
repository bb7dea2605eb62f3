module rudderraisin/gateway

go 1.19
