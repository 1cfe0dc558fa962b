cd "$(dirname "$0")" || exit 2
starload --repo . --match BUILD --language extended --record cc_library,cc_binary,cc_test --prelude //:prelude.bzl //... |
    python3 targets.py
