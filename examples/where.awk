# each data record behind its file, its title and its bar, which FILE and TITLE in the environment name
BEGIN { OFS = "\t"; bar = 0 }
/^=[0-9]/ { bar = substr($1, 2) + 0 }
!/^[*!=]/ { print ENVIRON["FILE"], ENVIRON["TITLE"], bar, $0 }
