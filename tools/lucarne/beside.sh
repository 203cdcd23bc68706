# Read by install.sh and package.sh.

# install_beside PROGRAM SHARE ZSH: the completions for bash, zsh (in its folder ZSH) and fish and the manual page, which the program itself writes, under
# this folder.
install_beside() {
    install -d "$2/bash-completion/completions" "$2/zsh/$3" "$2/fish/vendor_completions.d" "$2/man/man1"
    "$1" completions bash >"$2/bash-completion/completions/lucarne"
    "$1" completions zsh >"$2/zsh/$3/_lucarne"
    "$1" completions fish >"$2/fish/vendor_completions.d/lucarne.fish"
    "$1" man | gzip -9n >"$2/man/man1/lucarne.1.gz"
}
