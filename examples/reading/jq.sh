# a shell with jq
starload --with values --dir . //app:main.star |
    jq -c '.modules[] | select(.label == "//app:main.star") | .values.ports'
