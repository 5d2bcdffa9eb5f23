#!/bin/sh
printf '{"instance":%s,"solution":%s}\n' "$(cat "$1")" "$(cat "$2")"
