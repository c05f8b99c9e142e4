# Rows nested 200 deep: the last starts at depth 200, and the run is done.

from ()
to ()

fuel check 4096, run 200

script
  left [ left [ left [ left [ left [ left [ left [ left [ left [ left [ left [ left [ left [ left [ left [ left [
  left [ left [ left [ left [ left [ left [ left [ left [ left [ left [ left [ left [ left [ left [ left [ left [
  left [ left [ left [ left [ left [ left [ left [ left [ left [ left [ left [ left [ left [ left [ left [ left [
  left [ left [ left [ left [ left [ left [ left [ left [ left [ left [ left [ left [ left [ left [ left [ left [
  left [ left [ left [ left [ left [ left [ left [ left [ left [ left [ left [ left [ left [ left [ left [ left [
  left [ left [ left [ left [ left [ left [ left [ left [ left [ left [ left [ left [ left [ left [ left [ left [
  left [ left [ left [ left [ left [ left [ left [ left [ left [ left [ left [ left [ left [ left [ left [ left [
  left [ left [ left [ left [ left [ left [ left [ left [ left [ left [ left [ left [ left [ left [ left [ left [
  left [ left [ left [ left [ left [ left [ left [ left [ left [ left [ left [ left [ left [ left [ left [ left [
  left [ left [ left [ left [ left [ left [ left [ left [ left [ left [ left [ left [ left [ left [ left [ left [
  left [ left [ left [ left [ left [ left [ left [ left [ left [ left [ left [ left [ left [ left [ left [ left [
  left [ left [ left [ left [ left [ left [ left [ left [ left [ left [ left [ left [ left [ left [ left [ left [
  left [ left [ left [ left [ left [ left [ left [
  skip
  ]]]]]]]]]]]]]]]]]]]]]]]]]]]]]]]]]]]]]]]]]]]]]]]]]]]]]]]]]]]]]]]]]]]]]]]]]]]]]]]]]]]]]]]]]]]]]]]]
  ]]]]]]]]]]]]]]]]]]]]]]]]]]]]]]]]]]]]]]]]]]]]]]]]]]]]]]]]]]]]]]]]]]]]]]]]]]]]]]]]]]]]]]]]]]]]]]]]
  ]]]]]]]
