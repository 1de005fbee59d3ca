ln -s gone "$1/link"
