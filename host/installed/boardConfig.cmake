# For find_package(board): the targets board::board, the scheduling core, and board::images, what saves it as bytes. The
# folders are found from where this file stands.
get_filename_component(board_place "${CMAKE_CURRENT_LIST_DIR}/../../.." ABSOLUTE)
foreach(board_name board images)
    if(NOT TARGET board::${board_name})
        add_library(board::${board_name} STATIC IMPORTED)
        set_target_properties(board::${board_name} PROPERTIES
            IMPORTED_LOCATION "${board_place}/lib/lib${board_name}.a"
            INTERFACE_INCLUDE_DIRECTORIES "${board_place}/include")
    endif()
endforeach()
unset(board_place)
