# The Python of the scripts that start a program: without the modules of `site`, of which they need none; and the system's own where that on
# the path is a script itself (a shim), which takes longer than the program.
python=(python3 -S)
IFS= read -rn 2 sign 2>/dev/null <"$(type -P python3)"
if [ "${sign:-}" = '#!' ] && [ -x /usr/bin/python3 ]; then python=(/usr/bin/python3 -S); fi
