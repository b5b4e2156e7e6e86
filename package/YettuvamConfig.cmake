# Defines the imported target Yettuvam::yettuvam, a static library with its header.
# All paths are relative to this file, so the folders may be moved together.
if(NOT CMAKE_SYSTEM_NAME STREQUAL "Linux" OR NOT CMAKE_SYSTEM_PROCESSOR MATCHES "^(x86_64|amd64|AMD64)$" OR NOT CMAKE_SIZEOF_VOID_P EQUAL 8)
    set(Yettuvam_FOUND FALSE)
    set(Yettuvam_NOT_FOUND_MESSAGE "the library is built for Linux on x86-64")
    return()
endif()

if(NOT TARGET Yettuvam::yettuvam)
    get_filename_component(_yettuvam_library "${CMAKE_CURRENT_LIST_DIR}/@LIBDIR@/libyettuvam.a" ABSOLUTE)
    get_filename_component(_yettuvam_include "${CMAKE_CURRENT_LIST_DIR}/@INCLUDEDIR@" ABSOLUTE)
    add_library(Yettuvam::yettuvam STATIC IMPORTED)
    set_target_properties(Yettuvam::yettuvam PROPERTIES
        IMPORTED_LOCATION "${_yettuvam_library}"
        IMPORTED_LINK_INTERFACE_LANGUAGES C
        INTERFACE_INCLUDE_DIRECTORIES "${_yettuvam_include}")
    unset(_yettuvam_library)
    unset(_yettuvam_include)
endif()
