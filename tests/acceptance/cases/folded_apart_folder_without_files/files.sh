mkdir "$1/d"
