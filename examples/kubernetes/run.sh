cd "$(dirname "$0")" || exit 2
starload --repo . --language extended --record apply --get-calls apply //:shop.star |
    python3 objects.py
