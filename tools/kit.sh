# For scripts of this folder: where the kit's own tools are.
machine=$(uname -m)
kit=${RATTLE_HOME:-$(dirname "$(dirname "$(readlink -f "$(command -v rt)")")")}
toolchain=$kit/toolchain
