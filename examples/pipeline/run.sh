cd "$(dirname "$0")" || exit 2
starload --repo . --language extended --record pipeline --get-calls pipeline //:run.star |
    python3 steps.py
