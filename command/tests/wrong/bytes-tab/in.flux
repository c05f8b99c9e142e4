from () to ()
script
	skip;	insert	y
