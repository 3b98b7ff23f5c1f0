module words
