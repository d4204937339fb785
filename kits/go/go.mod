module plus

go 1.19
