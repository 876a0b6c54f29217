/*
 * Generated from lists/shapes.txt by make generate.
 *
 * Each shape by MAP or SET: its name, key and value, and how keys are hashed.
 */
#ifndef SHAPE_LIST_H
#define SHAPE_LIST_H

#define EACH_SHAPE(MAP, SET) \
    MAP(u32_u32, NUMBER, 32, NUMBER, 32, FX) \
    MAP(u64_u32, NUMBER, 64, NUMBER, 32, FX) \
    MAP(u64_u64, NUMBER, 64, NUMBER, 64, FX) \
    SET(u64, NUMBER, 64, FX) \
    MAP(b8_u32, BYTES, 8, NUMBER, 32, UN) \
    MAP(b8_u64, BYTES, 8, NUMBER, 64, UN) \
    MAP(b16_u32, BYTES, 16, NUMBER, 32, UN) \
    MAP(b16_u64, BYTES, 16, NUMBER, 64, UN) \
    MAP(b20_u64, BYTES, 20, NUMBER, 64, UN) \
    MAP(b32_u64, BYTES, 32, NUMBER, 64, UN) \
    MAP(b16_b16, BYTES, 16, BYTES, 16, UN) \
    MAP(b32_b32, BYTES, 32, BYTES, 32, UN) \
    SET(b8, BYTES, 8, UN) \
    SET(b16, BYTES, 16, UN) \
    SET(b20, BYTES, 20, UN) \
    SET(b32, BYTES, 32, UN)

#endif
