# find_package(failreg) finds this file, and with it the library in the same folder tree: link
# failreg::failreg. The tree may be moved as a whole.
get_filename_component(_failreg_prefix "${CMAKE_CURRENT_LIST_DIR}/../../.." ABSOLUTE)

if(NOT TARGET failreg::failreg)
    add_library(failreg::failreg STATIC IMPORTED)
    set_target_properties(failreg::failreg PROPERTIES
        IMPORTED_LOCATION "${_failreg_prefix}/lib/libfailreg.a"
        INTERFACE_INCLUDE_DIRECTORIES "${_failreg_prefix}/include"
        INTERFACE_LINK_OPTIONS "-pthread"
        IMPORTED_LINK_INTERFACE_LANGUAGES "C")
endif()

set(failreg_FOUND TRUE)
unset(_failreg_prefix)
