#!/bin/sh
# Builds the hashes as a static library, checks them against OpenSSL's and prints how fast they are beside others'.
exec "$(dirname "$0")/run.sh" hashes
