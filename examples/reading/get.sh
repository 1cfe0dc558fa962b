# one global, in a shell
starload --get ports --dir . //app:main.star
