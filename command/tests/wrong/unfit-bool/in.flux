from bool to bool
forest "true"
