# For find_package(literal_search) of CMake. The target literal_search::literal_search is the shared library, or the
# static one where ./install linked no shared one; literal_search::static is the static library. The header is in the
# next folder `include` above the folder of the libraries.
get_filename_component(literal_search_LIBDIR "${CMAKE_CURRENT_LIST_DIR}/../.." REALPATH)
set(literal_search_PREFIX "${literal_search_LIBDIR}")
while(NOT EXISTS "${literal_search_PREFIX}/include/literal_search.h" AND NOT literal_search_PREFIX STREQUAL "/")
    get_filename_component(literal_search_PREFIX "${literal_search_PREFIX}" DIRECTORY)
endwhile()

# Defines a target for a library, unless it is defined already.
function(literal_search_target name kind file)
    if(NOT TARGET "${name}")
        add_library("${name}" "${kind}" IMPORTED)
        set_target_properties("${name}" PROPERTIES
            IMPORTED_LOCATION "${literal_search_LIBDIR}/${file}"
            INTERFACE_INCLUDE_DIRECTORIES "${literal_search_PREFIX}/include")
    endif()
endfunction()

literal_search_target(literal_search::static STATIC libliteral_search.a)
if(EXISTS "${literal_search_LIBDIR}/libliteral_search.so.0")
    literal_search_target(literal_search::literal_search SHARED libliteral_search.so.0)
else()
    literal_search_target(literal_search::literal_search STATIC libliteral_search.a)
endif()
