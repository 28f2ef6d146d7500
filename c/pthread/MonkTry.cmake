# monk_try(NAME TARGET target [ARGS words..] [OPTIONS words..])
#
# Adds a test of ctest that runs the target by monk-try. It fails if a run goes wrong, and is skipped if nothing could
# be tried. NAME.xml, beside the first wrong run, has the table for JUnit. OPTIONS are those of monk-try.
find_program(MONK_TRY monk-try HINTS "${CMAKE_CURRENT_LIST_DIR}" "${CMAKE_CURRENT_LIST_DIR}/../../bin")

function(monk_try name)
  cmake_parse_arguments(PARSE_ARGV 1 it "" "TARGET" "ARGS;OPTIONS")
  if(NOT MONK_TRY)
    message(FATAL_ERROR "monk_try: there is no monk-try: install monk, or set MONK_TRY")
  endif()
  set(kept "${CMAKE_CURRENT_BINARY_DIR}/${name}")
  add_test(NAME ${name}
    COMMAND ${MONK_TRY} --keep ${kept} --junit ${kept}.xml ${it_OPTIONS} -- $<TARGET_FILE:${it_TARGET}> ${it_ARGS})
  set_tests_properties(${name} PROPERTIES SKIP_RETURN_CODE 125 RUN_SERIAL TRUE)
endfunction()
