show
extra
