"""What turns `jref` into commands and answers for people and editors. It knows no Java: it asks."""

VERSION = "1"
