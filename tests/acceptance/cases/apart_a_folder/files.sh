mkdir "$1/folder"
