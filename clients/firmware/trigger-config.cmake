# find_package(trigger), and target_link_libraries(program trigger::trigger), or trigger::rack for
# calls on a row of cards: the header and the libraries of the folder that this file is in.
get_filename_component(trigger_prefix "${CMAKE_CURRENT_LIST_DIR}/../../.." ABSOLUTE)
if(NOT TARGET trigger::trigger)
    add_library(trigger::trigger STATIC IMPORTED)
    set_target_properties(trigger::trigger PROPERTIES
        IMPORTED_LOCATION "${trigger_prefix}/lib/libtrigger.a"
        INTERFACE_INCLUDE_DIRECTORIES "${trigger_prefix}/include")
    add_library(trigger::rack STATIC IMPORTED)
    set_target_properties(trigger::rack PROPERTIES
        IMPORTED_LOCATION "${trigger_prefix}/lib/librack.a"
        INTERFACE_LINK_LIBRARIES trigger::trigger)
endif()
